"""`paris prompt`: commands that are told one by one."""
