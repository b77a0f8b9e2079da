"""What tries the replicas. Nothing here is a part of the program."""
