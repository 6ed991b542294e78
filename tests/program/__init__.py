"""The built program compared with stored output and with the documents."""
