app = marimo.App()
