"""What a folder of files had, kept in a store and compared with what it has."""
