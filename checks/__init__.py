# SPDX-License-Identifier: MIT OR Apache-2.0
"""Checks of what is not proved (checks/README.md)."""
