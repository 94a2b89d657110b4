"""A bench in the browser: one page, served on 127.0.0.1, on which a watch is written, judged as one types, and drawn.

`judge` says what is to be said of a watch, `worker` does so in a process of its own, `pool` keeps such processes and gives each a
limited time, `server` serves the page. Nothing is written, and no request names a file.
"""
