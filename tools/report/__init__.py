"""What tools/matter_report is made of: a subject a file."""
