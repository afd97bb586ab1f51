"""Cases of the sender's rules, a file for each rule."""
