"""Tries opc_klayout.lym in a hidden window of KLayout: tools/test.sh runs it. It saves the layout with the mask to TRIAL_OUT.gds."""
import os
import sys
import xml.etree.ElementTree

import pya

tools, out = os.environ["TRIAL_TOOLS"], os.environ["TRIAL_OUT"]
examples = os.path.join(os.path.dirname(tools), "examples")
sys.path.insert(0, tools)
status = 1
try:
    scope = {}
    exec(xml.etree.ElementTree.parse(os.path.join(tools, "opc_klayout.lym")).find("text").text, scope)
    window = pya.MainWindow.instance()
    window.load_layout(os.path.join(examples, "cell.gds"), 1)
    view = pya.LayoutView.current()
    cellview = view.active_cellview()
    cellview.cell = cellview.layout().cell("TOP")
    files = [os.path.join(examples, it) for it in ("duv.opk", "rules.toml")]
    end = scope["correct"](view, cellview, 10, 0, *files)  # (a hidden window has no list of layers to choose from)
    cellview.layout().write(out + ".gds")
    report = view.rdb(view.num_rdbs() - 1)
    print(f"{end}; {report.num_items()} markers in {sum(1 for _ in report.each_category())} categories")
    status = 0
finally:
    sys.stdout.flush()
    sys.stderr.flush()
    if status:
        import traceback

        traceback.print_exc()
    os._exit(status)
