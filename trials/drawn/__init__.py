"""What the kinds random and mangled draw: lines, logs, states and words."""
