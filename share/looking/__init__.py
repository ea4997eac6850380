"""The forms of share/look: a module for each, and what they share."""
