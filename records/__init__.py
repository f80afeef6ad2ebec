# SPDX-License-Identifier: MIT OR Apache-2.0
"""Records, and logs of single processors, as Python values (docs/FORMAT.md): `events` has the values,
`reading` and `writing` turn the bytes of a record into them and back, and `logs` does both for a log.
`checks/emitter/encoder.py` and `bench/auditor` read the same page by themselves, so that checks can
compare readings: they use nothing of this package."""
