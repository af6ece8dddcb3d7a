"""Reports, and the parts of their page.

    reading     reads and checks a report
    texts       numbers and texts as the page shows them
    graph       a graph of lines, drawn as SVG
    drawings    the sections with graphs
    sections    the other sections
    adapters    the section on adapters
    lanes       the tables of lanes
    provenance  how each run was made
    page        the whole page
    style.css   how it looks
    settings    how the workflow trimmed a sample
    outliers    which samples lie outside the others
    overview    what the workflow says of all samples
"""
