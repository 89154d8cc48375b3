import marimo
app = marimo.App()
@app.cell
def _():
    import marimo
if __name__ == "__main__":
    app.run()
