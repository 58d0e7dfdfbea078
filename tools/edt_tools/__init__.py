"""What the Python tools of this folder share: words and numbers, headers, control files, reports, and new files."""
