"""Placement groups of Ceph."""
