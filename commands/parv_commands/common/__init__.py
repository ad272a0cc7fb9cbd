"""What several commands need: they run parv, read what it prints, open files below a folder, and change them."""
