"""Programs that measure how much time and memory parv takes."""
