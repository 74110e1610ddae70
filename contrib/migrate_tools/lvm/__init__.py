"""Volume groups of LVM."""
