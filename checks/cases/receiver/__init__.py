"""Cases of the receiver's rules, a file for each rule."""
