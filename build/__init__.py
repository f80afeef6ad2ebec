# SPDX-License-Identifier: MIT OR Apache-2.0
"""What builds the program and its package."""
