"""A plugin of KiCad's board editor that runs ringcheck on the open board and marks what it finds. README.md says how to install it."""
import pcbnew

from . import checking


class Plugin(pcbnew.ActionPlugin):
    # KiCad calls these two by their names.
    def defaults(self):
        self.name = "ringcheck"
        self.category = "Fabrication check"
        self.description = "Checks the annular rings of the plotted board and the gaps between its holes, and marks the findings"
        self.show_toolbar_button = True

    def Run(self):
        try:
            from . import window
        except ImportError:
            window = None
        if window and window.has_screen():
            window.start(pcbnew.GetBoard())
        else:
            checking.print_findings(pcbnew.GetBoard())


Plugin().register()
