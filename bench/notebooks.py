"""Notebooks of the benchmarks."""


def notebook(cells):
    """The file of a notebook, from the lines of each cell."""
    lines = ["import marimo", "app = marimo.App()"]
    for cell in cells:
        lines += ["@app.cell", "def _():"] + ["    " + line for line in cell]
    return "\n".join(lines + ['if __name__ == "__main__":', "    app.run()"]) + "\n"
