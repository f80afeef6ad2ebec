# SPDX-License-Identifier: MIT OR Apache-2.0
"""The probe: a guest that records itself, and what runs it, judges its records and shrinks them (docs/PROBE.md)."""
