"""What a user of storage fears, tried on the built program."""
