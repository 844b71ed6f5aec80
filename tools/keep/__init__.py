"""What tivrenan-backup and tivrenan-restore share. No contract speaks of them."""
