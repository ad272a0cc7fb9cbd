"""The code of the commands around parv, with a module for each subject."""
