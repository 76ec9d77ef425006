"""The parts of the page's test, and how one is run in the browser."""
import pathlib

from tests.page import (bounds, conduct, damage, elements, endurance, everyone, first, giving, history, installed,
                        labels, kept, contents, looks, order, paper, photographs, pictures, several, sights, sizes,
                        tasks, texts)
from tests.page.stage import Failed, to_top, unfold, visit

# The longest begin first, where parts are shared out.
LONGEST = ["bursts", "without_growth", "texts_of_all_scripts", "photographs", "other_encoders", "sizes", "doubted",
           "each_is_made", "sizes_by_shape", "marks_of_every_size", "in_all_ways", "much_damage"]
PARTS = [everyone.one_file, damage.codewords, damage.by_keys, damage.dragged, damage.touched, damage.border,
         damage.fixed_square, damage.another_message, texts.pasted, pictures.pictures, pictures.other_codes,
         pictures.printed, texts.compared, pictures.saved_and_opened, texts.spellings, damage.small_symbol,
         everyone.to_be_seen_by_all, texts.profiles, *conduct.PARTS, *giving.PARTS, *looks.PARTS, *tasks.PARTS,
         *order.PARTS, *first.PARTS, *history.PARTS, *kept.PARTS, *elements.PARTS, *paper.PARTS, *labels.PARTS,
         *sights.PARTS, *several.PARTS, *installed.PARTS, *sizes.PARTS, *contents.PARTS, *bounds.PARTS, damage.blocks,
         *endurance.PARTS, damage.much_damage, *photographs.PARTS, texts.other_encoders, everyone.old_browser]
PARTS.sort(key=lambda part: LONGEST.index(part.__name__) if part.__name__ in LONGEST else len(LONGEST))


def load(file):
    visit(f"{pathlib.Path(file).resolve().as_uri()}#make")
    unfold("more-ways")  # so that all buttons can be pressed


def fault_of(part, file):
    """Runs a part over a page, which is loaded anew, from its top; why it couldn't go on, if it couldn't."""
    try:
        load(file)
        to_top()
        part()
    except Failed:
        raise
    except Exception as fault:
        return fault
    return None
