"""The page on which a year of a plan can be looked at.

`instance` and `plan` say what the page shows of these, as it was judged, `folder` opens a folder of `plan`, `page` puts
the page together of its parts beside it, and `script` is what tools/view runs.
"""
