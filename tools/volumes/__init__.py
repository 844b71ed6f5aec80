"""What take_volume, check_report and volume_as are made of: a subject a file."""
