"""The commands of contrib/: LVM's and Ceph's outputs to the three files of `migrate`, plans to commands, and what shows
plans."""
