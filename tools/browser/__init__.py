"""Headless Chromium, and the page of hosts/browser in it: the parts of tools/try_hosts and tools/try_page."""
