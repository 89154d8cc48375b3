import marimo
app = marimo.App()
def _():
    x
