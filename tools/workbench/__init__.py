"""The parts of tools/serve: a page in the browser to write scripts on, and the server of that page. `check` tries both."""
