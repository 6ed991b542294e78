"""The examples as services: their menus, reports and pages, byte for byte, and the sample library as it is served."""
