# SPDX-License-Identifier: MIT OR Apache-2.0
"""Outcomes of an access, by trial."""
