"""Folders on mounted disks."""
