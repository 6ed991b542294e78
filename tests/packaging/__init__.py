"""What packaging/ and front_door/ declare to systemd, nginx, haproxy, Kubernetes and Debian, and their scripts."""
