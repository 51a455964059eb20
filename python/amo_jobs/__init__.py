"""The package of amo_jobs and amo_share.

Begin with `cli` for amo_jobs, and with `share` for amo_share. No proof sees this package.
"""
