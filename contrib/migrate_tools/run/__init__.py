"""Plans that are carried out by commands of anyone's own."""
