# SPDX-License-Identifier: MIT OR Apache-2.0
"""The recorder that boots a Linux in an emulator (docs/LINUX.md)."""
