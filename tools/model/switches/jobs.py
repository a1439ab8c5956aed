"""Tickets, the images that they take, and the JSON that they stand in."""

from . import switch

KEYS = ["Version", "Type", "JobID", "NPage", "Amount"]
OPTIONAL = [("RunList", "null"), ("Media", "A4"), ("Sides", "TwoSidedHeadToHead"), ("Collate", "False"), ("Resolution", "600")]
REQUIRED = 'REQUIRED = ["Version", "Type", "JobID", "NPage", "Amount"]'
LIST = '["RunList", "Media", "Sides", "Collate", "Resolution"]'
JUDGED = "        if (key in REQUIRED and key not in value) or (key in value and not ADMITTED[key](value[key])):\n"
TYPE = "    if value[\"Type\"] != \"DigitalPrinting\":\n        raise Refused(WRONG_PROCESS)\n"
COUNT = "    if not 1 <= value[\"NPage\"] <= MOST_PAGES:\n        raise Refused(BAD_RANGE)\n"
SET = "    pages = set_of_pages(value.get(\"RunList\", [[0, -1]]), value[\"NPage\"])\n"
AMOUNT = "    if not 1 <= value[\"Amount\"] <= MOST_AMOUNT:\n        raise Refused(BAD_AMOUNT)\n"
UNKNOWN = "    if unknown:\n        raise Refused(NOT_PROFILE, min(unknown, key=str.encode))\n"
WIDE = "    if any(width > most_across for width, _ in chosen):\n        raise Refused(TOO_WIDE)\n"
TALL = "    if any(len(rows) > most_down for _, rows in chosen):\n        raise Refused(TOO_TALL)\n"


def optional(key):
    return JUDGED.replace("key in REQUIRED and", f"key in REQUIRED and key != {key!r} and")


def exchanged(first):
    """The order of keys with one and the next exchanged."""
    keys = list(KEYS)
    keys[first], keys[first + 1] = keys[first + 1], keys[first]
    return "REQUIRED = [%s]" % ", ".join(f'"{key}"' for key in keys)


def exchanged_optional(first):
    names = [key for key, _ in OPTIONAL]
    names[first], names[first + 1] = names[first + 1], names[first]
    return "[%s]" % ", ".join(f'"{key}"' for key in names)


SWITCHES = [switch(f"ticket-{KEYS[first].lower()}-behind-{KEYS[first + 1].lower()}", f"{KEYS[first]} is judged before {KEYS[first + 1]}.", "ticket", REQUIRED, exchanged(first)) for first in range(4)]
SWITCHES += [switch(f"ticket-{OPTIONAL[first][0].lower()}-behind-{OPTIONAL[first + 1][0].lower()}", f"{OPTIONAL[first][0]} is judged before {OPTIONAL[first + 1][0]}.", "ticket", LIST, exchanged_optional(first)) for first in range(4)]
SWITCHES += [switch(f"ticket-without-{key.lower()}", f"A ticket has {key}.", "ticket", JUDGED, optional(key),
                    "ticket", "    if value[\"Type\"] != \"Dig", "    value = {**dict(Version=\"1.5\", Type=\"DigitalPrinting\", JobID=\"J\", NPage=1, Amount=1), **value}\n    if value[\"Type\"] != \"Dig") for key in KEYS]
SWITCHES += [
    switch("ticket-optional-before-required", "What is required is judged before what is optional.", "ticket", "KEYS = REQUIRED + OPTIONAL", "KEYS = OPTIONAL + REQUIRED"),
    switch("ticket-of-any-version", "The version of a ticket is 1.5.", "ticket", '"Version": lambda value: value == "1.5"', '"Version": json_text.is_text'),
    switch("ticket-version-as-a-number", "The version of a ticket is a text.", "ticket", '"Version": lambda value: value == "1.5"', '"Version": lambda value: value in ("1.5", 1.5)'),
    switch("ticket-of-any-type", "The type of a ticket is DigitalPrinting.", "ticket", TYPE, ""),
    switch("ticket-type-is-of-the-profile", "Another type is 603.", "ticket", "        raise Refused(WRONG_PROCESS)\n", "        raise Refused(NOT_PROFILE, \"Type\")\n"),
    switch("ticket-type-first", "Keys are judged before the type.", "ticket", UNKNOWN, UNKNOWN + "    if value.get(\"Type\", \"DigitalPrinting\") != \"DigitalPrinting\":\n        raise Refused(WRONG_PROCESS)\n"),
    switch("ticket-type-behind-pages", "The type is judged before the pages.", "ticket", TYPE + COUNT, COUNT + TYPE),
    switch("ticket-amount-before-pages", "The pages are judged before the amount.", "ticket", COUNT + SET + AMOUNT, AMOUNT + COUNT + SET),
    switch("ticket-amount-before-the-set", "The set of pages is judged before the amount.", "ticket", SET + AMOUNT, AMOUNT + SET),
    switch("ticket-job-id-of-64", "A job ID has 63 bytes at most.", "ticket", "1 <= len(value) <= 63", "1 <= len(value) <= 64"),
    switch("ticket-job-id-of-63-is-none", "A job ID may have 63 bytes.", "ticket", "1 <= len(value) <= 63", "1 <= len(value) <= 62"),
    switch("ticket-job-id-empty", "A job ID has a byte at least.", "ticket", "1 <= len(value) <= 63", "0 <= len(value) <= 63"),
    switch("ticket-job-id-with-127", "The bytes of a job ID are 126 at most.", "ticket", '" " <= character <= "~"', '" " <= character <= "\\x7f"'),
    switch("ticket-job-id-with-31", "The bytes of a job ID are 32 at least.", "ticket", '" " <= character <= "~"', '"\\x1f" <= character <= "~"'),
    switch("ticket-job-id-with-other-letters", "A job ID has letters of ASCII alone.", "ticket", '" " <= character <= "~"', '" " <= character and character != "\\x7f"'),
    switch("ticket-job-id-without-spaces", "A job ID may have a space.", "ticket", '" " <= character <= "~"', '"!" <= character <= "~"'),
    switch("ticket-of-no-page", "A ticket has a page at least.", "ticket", 'if not 1 <= value["NPage"] <= MOST_PAGES', 'if not 0 <= value["NPage"] <= MOST_PAGES', "ticket", "    if not 0 <= index < page_count:\n", "    index = max(0, index)\n    if not 0 <= index < max(1, page_count):\n"),
    switch("ticket-of-1000-pages", "A ticket has 999 pages at most.", "ticket", "MOST_PAGES = 999", "MOST_PAGES = 1000"),
    switch("ticket-of-999-pages-is-none", "A ticket may have 999 pages.", "ticket", "MOST_PAGES = 999", "MOST_PAGES = 998"),
    switch("ticket-pages-by-kind", "A number of pages out of range is 604.", "ticket", COUNT, "    if not 1 <= value[\"NPage\"] <= MOST_PAGES:\n        raise Refused(NOT_PROFILE, \"NPage\")\n"),
    switch("ticket-of-no-amount", "A ticket has an amount of 1 at least.", "ticket", 'if not 1 <= value["Amount"]', 'if not 0 <= value["Amount"]'),
    switch("ticket-amount-of-10000", "A ticket has an amount of 9,999 at most.", "ticket", "MOST_AMOUNT = 9999", "MOST_AMOUNT = 10000"),
    switch("ticket-amount-of-9999-is-none", "A ticket may have an amount of 9,999.", "ticket", "MOST_AMOUNT = 9999", "MOST_AMOUNT = 9998"),
    switch("ticket-whole-numbers-with-a-point", "A whole number has no point.", "ticket", '"Amount": json_text.is_whole', '"Amount": lambda value: json_text.is_whole(value) or isinstance(value, float) and value == int(value)', "ticket", '"NPage": json_text.is_whole', '"NPage": lambda value: json_text.is_whole(value) or isinstance(value, float) and value == int(value)'),
    switch("ticket-truth-values-are-numbers", "A truth value is no number.", "json_text", "    return type(value) is int\n", "    return isinstance(value, int)\n"),
    switch("ticket-list-of-65-pairs", "A run list has 64 pairs at most.", "ticket", "MOST_PAIRS = 64", "MOST_PAIRS = 65"),
    switch("ticket-list-of-64-pairs-is-none", "A run list may have 64 pairs.", "ticket", "MOST_PAIRS = 64", "MOST_PAIRS = 63"),
    switch("ticket-list-without-pairs", "A run list has a pair at least.", "ticket", "1 <= len(value) <= MOST_PAIRS", "0 <= len(value) <= MOST_PAIRS"),
    switch("ticket-pair-of-three", "A pair has two numbers.", "ticket", "isinstance(value, list) and len(value) == 2 and", "isinstance(value, list) and 2 <= len(value) <= 3 and", "ticket", "    for first, last in pairs:\n", "    for first, last, *_ in pairs:\n"),
    switch("ticket-pair-of-one", "A pair has two numbers, and not one.", "ticket", "isinstance(value, list) and len(value) == 2 and", "isinstance(value, list) and 1 <= len(value) <= 2 and", "ticket", "    for first, last in pairs:\n", "    for first, last in [(pair[0], pair[-1]) for pair in pairs]:\n"),
    switch("ticket-pages-from-1", "Pages are counted from 0.", "ticket", "    index = number + page_count if number < 0 else number\n", "    index = number + page_count if number < 0 else max(0, number - 1)\n"),
    switch("ticket-pages-from-the-end-by-0", "The last page is -1.", "ticket", "    index = number + page_count if number < 0 else number\n", "    index = number + page_count - 1 if number < 0 else number\n"),
    switch("ticket-no-pages-from-the-end", "A negative page counts from the end.", "ticket", "    index = number + page_count if number < 0 else number\n", "    index = number\n"),
    switch("ticket-page-past-the-end", "A page past the last one is 604.", "ticket", "    if not 0 <= index < page_count:\n        raise Refused(BAD_RANGE)\n    return index\n", "    if not 0 <= index:\n        raise Refused(BAD_RANGE)\n    return min(index, page_count - 1)\n"),
    switch("ticket-page-before-the-first", "A page before the first one is 604.", "ticket", "    if not 0 <= index < page_count:\n        raise Refused(BAD_RANGE)\n    return index\n", "    if not index < page_count:\n        raise Refused(BAD_RANGE)\n    return max(0, index)\n"),
    switch("ticket-pair-without-its-last", "A pair has its last page, too.", "ticket", "            pages += range(first, last + 1)\n", "            pages += range(first, max(last, first + 1))\n"),
    switch("ticket-pair-downwards-is-nothing", "A pair whose first page is greater runs downwards.", "ticket", "            pages += range(first, last - 1, -1)\n", "            pages += []\n"),
    switch("ticket-pair-downwards-runs-upwards", "A pair whose first page is greater runs from it.", "ticket", "            pages += range(first, last - 1, -1)\n", "            pages += range(last, first + 1)\n"),
    switch("ticket-set-in-page-order", "The set has the pages of the pairs in order.", "ticket", "    if len(pages) > MOST_PAGES:\n", "    pages = sorted(pages)\n    if len(pages) > MOST_PAGES:\n"),
    switch("ticket-set-without-repeats", "A page may stand in the set twice.", "ticket", "    if len(pages) > MOST_PAGES:\n", "    pages = list(dict.fromkeys(pages))\n    if len(pages) > MOST_PAGES:\n"),
    switch("ticket-set-of-any-length", "A set has 999 pages at most.", "ticket", "    if len(pages) > MOST_PAGES:\n        raise Refused(BAD_RANGE)\n", ""),
    switch("ticket-default-set-of-one", "Without a run list the set has each page.", "ticket", 'value.get("RunList", [[0, -1]])', 'value.get("RunList", [[0, 0]])'),
    switch("ticket-default-medium", "Without a medium it is Letter.", "ticket", 'value.get("Media", "Letter")', 'value.get("Media", "A4")'),
    switch("ticket-default-sides", "Without sides one side is printed.", "ticket", 'value.get("Sides", SIDES[0])', 'value.get("Sides", SIDES[1])'),
    switch("ticket-default-collation", "Without collation the sets are collated.", "ticket", 'value.get("Collate", True)', 'value.get("Collate", False)'),
    switch("ticket-default-resolution", "Without a resolution it is 300.", "ticket", 'value.get("Resolution", FACTORY_RESOLUTION)', 'value.get("Resolution", 600)'),
    switch("ticket-resolution-450", "A resolution is 300 or 600.", "ticket", "RESOLUTIONS = (300, 600)", "RESOLUTIONS = (300, 450, 600)", "ticket", 'value.get("Resolution", FACTORY_RESOLUTION)', 'value.get("Resolution", FACTORY_RESOLUTION) // 300 * 300'),
    switch("ticket-resolution-600-is-none", "A resolution may be 600.", "ticket", "RESOLUTIONS = (300, 600)", "RESOLUTIONS = (300,)"),
    switch("ticket-resolution-with-a-point", "A resolution is a whole number.", "ticket", '"Resolution": lambda value: json_text.is_whole(value) and value in RESOLUTIONS', '"Resolution": lambda value: not isinstance(value, (list, dict)) and value in RESOLUTIONS', "ticket", 'value.get("Resolution", FACTORY_RESOLUTION)', 'int(value.get("Resolution", FACTORY_RESOLUTION))'),
    switch("ticket-medium-in-any-case", "The name of a medium is spelled as it is.", "ticket", "json_text.is_text(value) and value in SIZES", "json_text.is_text(value) and value.lower() in [name.lower() for name in SIZES]", "ticket", 'value.get("Media", "Letter")', 'next(name for name in SIZES if name.lower() == value.get("Media", "Letter").lower())'),
    switch("ticket-null-is-absent", "Null for an optional key is of another kind.", "ticket", "    unknown = [", "    value = {key: each for key, each in value.items() if each is not None or key in REQUIRED}\n    unknown = ["),
    switch("ticket-collation-as-a-text", "Collation is a truth value.", "ticket", '"Collate": lambda value: isinstance(value, bool)', '"Collate": lambda value: isinstance(value, bool) or value in (0, 1, "true", "false")'),
    switch("ticket-head-to-foot-is-none", "There is head to foot.", "ticket", '"TwoSidedHeadToHead", "TwoSidedHeadToFoot"]', '"TwoSidedHeadToHead"]'),
    switch("ticket-head-to-head-is-none", "There is head to head.", "ticket", '"TwoSidedHeadToHead", "TwoSidedHeadToFoot"]', '"TwoSidedHeadToFoot"]'),
    switch("ticket-unknown-keys", "A ticket has no other keys.", "ticket", UNKNOWN, ""),
    switch("ticket-first-unknown-key", "The least unknown key in the order of bytes is told.", "ticket", "min(unknown, key=str.encode)", "unknown[0]"),
    switch("ticket-unknown-keys-in-any-case", "The least unknown key is told, upper-case letters before lower-case ones.", "ticket", "min(unknown, key=str.encode)", "min(unknown, key=str.lower)"),
    switch("ticket-unknown-keys-behind", "Unknown keys are judged before all others.", "ticket", UNKNOWN, "", "ticket", TYPE, UNKNOWN + TYPE),
    switch("ticket-keys-in-any-case", "The keys of a ticket are spelled as they are.", "ticket", "    unknown = [key for key in value if key not in KEYS]\n", "    unknown = [key for key in value if key.lower() not in [each.lower() for each in KEYS]]\n"),
    switch("ticket-of-a-list", "A ticket is an object.", "ticket", "    if not isinstance(value, dict):\n        raise Refused(NOT_JSON)\n", "    if not isinstance(value, dict):\n        raise Refused(NOT_PROFILE, \"Version\")\n"),
    # what is printed
    switch("ticket-one-sided-pairs-up", "One-sided, each page is a sheet.", "ticket", '        return self.sides != "OneSidedFront"\n', '        return self.sides != "None"\n'),
    switch("ticket-head-to-foot-is-one-sided", "Head to foot prints both sides.", "ticket", '        return self.sides != "OneSidedFront"\n', '        return self.sides == "TwoSidedHeadToHead"\n'),
    switch("ticket-odd-page-has-a-back", "An odd last page has no back.", "ticket", "        pages = pages + [None] * (len(pages) % 2)\n", "        pages = pages + pages[:len(pages) % 2]\n"),
    switch("ticket-odd-page-takes-the-next-set", "A set begins on a front.", "ticket", "        pages = pages + [None] * (len(pages) % 2)\n        sheets = list(zip(pages[0::2], pages[1::2]))\n",
           "        if ticket.collate:\n            pages = pages * ticket.amount + [None] * (len(pages) * ticket.amount % 2)\n            return list(zip(pages[0::2], pages[1::2]))\n        pages = pages + [None] * (len(pages) % 2)\n        sheets = list(zip(pages[0::2], pages[1::2]))\n"),
    switch("ticket-collated-by-sheets", "Collated, the set is printed amount times.", "ticket", "    if ticket.collate:\n        return sheets * ticket.amount\n", ""),
    switch("ticket-not-collated-by-sets", "Not collated, each sheet is printed amount times in a row.", "ticket", "    if ticket.collate:\n        return sheets * ticket.amount\n", "    if True:\n        return sheets * ticket.amount\n"),
    switch("ticket-one-of-each", "A set is printed as often as the amount says.", "ticket", "    if ticket.collate:\n        return sheets * ticket.amount\n", "    if ticket.collate:\n        return sheets\n"),
    switch("ticket-image-at-the-edge", "An image begins at the left of the logical page.", "ticket", "    offset = ticket.size().portrait_offset\n", "    offset = 0\n"),
    switch("ticket-image-below-the-margin", "An image begins at the top of the page.", "ticket", "    return {y: int(row[::-1], 2) << offset for", "    return {y + 150: int(row[::-1], 2) << offset for"),
    switch("ticket-image-mirrored", "An image stands as it is.", "ticket", "    return {y: int(row[::-1], 2) << offset for", "    return {y: int(row, 2) << offset for"),
    # images
    switch("fewer-images", "There are as many images as pages.", "ticket", "    if len(images) < ticket.page_count:\n        raise Refused(PAGE_MISSING)\n", "    if len(images) <= max(ticket.pages):\n        raise Refused(PAGE_MISSING)\n"),
    switch("more-images-are-refused", "More images than pages are fine.", "ticket", "    if len(images) < ticket.page_count:\n", "    if len(images) != ticket.page_count:\n"),
    switch("images-of-the-set-behind-their-sizes", "The number of images is judged before their sizes.", "ticket", "    if len(images) < ticket.page_count:\n        raise Refused(PAGE_MISSING)\n", "    if any(width > ticket.room()[0] for width, _ in images):\n        raise Refused(TOO_WIDE)\n    if len(images) < ticket.page_count:\n        raise Refused(PAGE_MISSING)\n"),
    switch("images-out-of-the-set-are-judged", "An image of a page that is not in the set may have any size.", "ticket", "    chosen = [images[page] for page in ticket.pages]\n", "    chosen = images[:ticket.page_count]\n"),
    switch("images-too-many-are-judged", "An image past the pages may have any size.", "ticket", "    chosen = [images[page] for page in ticket.pages]\n", "    chosen = images\n"),
    switch("image-a-dot-too-wide", "An image is not wider than the logical page.", "ticket", "width > most_across", "width > most_across + 1"),
    switch("image-as-wide-as-the-page", "An image may be as wide as the logical page.", "ticket", "width > most_across", "width >= most_across"),
    switch("image-as-wide-as-the-medium", "An image is not wider than the logical page, which is narrower than the medium.", "ticket", "return size.width - 2 * size.portrait_offset, size.height", "return size.width, size.height"),
    switch("image-a-dot-too-tall", "An image is not taller than the logical page.", "ticket", "len(rows) > most_down", "len(rows) > most_down + 1"),
    switch("image-as-tall-as-the-page", "An image may be as tall as the logical page.", "ticket", "len(rows) > most_down", "len(rows) >= most_down"),
    switch("tall-images-first", "Widths of all images are judged before heights.", "ticket", WIDE + TALL, TALL + WIDE),
    switch("images-one-by-one", "Widths of all images are judged before the height of any.", "ticket", WIDE + TALL, "    for width, rows in chosen:\n        if width > most_across:\n            raise Refused(TOO_WIDE)\n        if len(rows) > most_down:\n            raise Refused(TOO_TALL)\n"),
    switch("images-at-300", "Images are judged in dots of the ticket's resolution.", "ticket", "        return SIZES[self.media].at(self.resolution)\n\n    def room(self):\n        \"\"\"Width and height of the logical page in dots.\"\"\"\n        size = self.size()\n", "        return SIZES[self.media].at(self.resolution)\n\n    def room(self):\n        \"\"\"Width and height of the logical page in dots.\"\"\"\n        size = SIZES[self.media]\n"),
    # P4 files
    switch("image-of-any-letter", "An image begins with P4.", "pbm", 'HEADER = re.compile(rb"P4"', 'HEADER = re.compile(rb"[Pp][45]"'),
    switch("image-without-a-gap", "A gap stands behind P4.", "pbm", 'HEADER = re.compile(rb"P4" + GAP', 'HEADER = re.compile(rb"P4(?:" + GAP + rb")?"'),
    switch("image-without-comments", "A gap may have comments.", "pbm", 'GAP = rb"(?:" + WHITE + rb"|" + COMMENT + rb")+"', 'GAP = rb"(?:" + WHITE + rb")+"'),
    switch("image-comment-up-to-a-line-feed", "A comment ends with a carriage return, too.", "pbm", 'COMMENT = rb"#[^\\r\\n]*[\\r\\n]"', 'COMMENT = rb"#[^\\n]*[\\n]"'),
    switch("image-comment-up-to-a-carriage-return", "A comment ends with a line feed.", "pbm", 'COMMENT = rb"#[^\\r\\n]*[\\r\\n]"', 'COMMENT = rb"#[^\\r]*[\\r]"'),
    switch("image-comment-right-behind-a-number", "A comment may begin right behind a number.", "pbm", 'rb"([0-9]+)" + GAP + rb"([0-9]+)"', 'rb"([0-9]+)" + WHITE + GAP + rb"?([0-9]+)"'),
    switch("image-white-space-without-9", "A tabulator is white space of a header.", "pbm", 'WHITE = rb"[\\t-\\r ]"', 'WHITE = rb"[\\n-\\r ]"'),
    switch("image-white-space-without-13", "A carriage return is white space of a header.", "pbm", 'WHITE = rb"[\\t-\\r ]"', 'WHITE = rb"[\\t-\\f ]"'),
    switch("image-white-space-without-11", "The bytes 11 and 12 are white space of a header.", "pbm", 'WHITE = rb"[\\t-\\r ]"', 'WHITE = rb"[\\t\\n\\r ]"'),
    switch("image-white-space-of-8", "The byte 8 is no white space.", "pbm", 'WHITE = rb"[\\t-\\r ]"', 'WHITE = rb"[\\x08-\\r ]"'),
    switch("image-white-space-of-14", "The byte 14 is no white space.", "pbm", 'WHITE = rb"[\\t-\\r ]"', 'WHITE = rb"[\\t-\\x0e ]"'),
    switch("image-many-spaces-before-the-rows", "One white space byte stands behind the height.", "pbm", 'rb"([0-9]+)" + WHITE)', 'rb"([0-9]+)" + WHITE + rb"+")'),
    switch("image-comment-before-the-rows", "No comment stands behind the height.", "pbm", 'rb"([0-9]+)" + WHITE)', 'rb"([0-9]+)" + rb"(?:" + COMMENT + rb"|" + WHITE + rb")")'),
    switch("image-height-first", "The width stands before the height.", "pbm", "    width, height = map(int, header.groups())\n", "    height, width = map(int, header.groups())\n"),
    switch("image-of-no-width", "A width of 0 is 112.", "pbm", "    width, height = map(int, header.groups())\n", "    width, height = map(int, header.groups())\n    width = width or 1\n"),
    switch("image-of-no-height", "A height of 0 is 112.", "pbm", "and 1 <= height <= GREATEST_SIDE):", "and 0 <= height <= GREATEST_SIDE):"),
    switch("image-of-16385", "A side is 16,384 at most.", "pbm", "GREATEST_SIDE = 16384", "GREATEST_SIDE = 16385"),
    switch("image-of-16384-is-none", "A side may be 16,384.", "pbm", "GREATEST_SIDE = 16384", "GREATEST_SIDE = 16383"),
    switch("image-of-any-size-is-cut", "A side out of range is told before the rows are read.", "pbm", "        raise Refused(BAD_SIZE)\n", "        raise Refused(BAD_SIZE if len(file) > header.end() else TRUNCATED)\n"),
    switch("image-rows-packed", "Each row of an image begins with a byte.", "pbm", "    row_bytes = (width + 7) // 8\n    after", "    row_bytes = max(1, width // 8)\n    after"),
    switch("image-white-is-1", "A black dot of an image is 1.", "pbm", "[:width] for start in starts]", "[:width].translate({48: 49, 49: 48}) for start in starts]"),
    switch("image-least-bit-left", "The most significant bit of a byte is the leftmost dot of an image.", "pbm", 'int.from_bytes(file[start:start + row_bytes], "big")', 'int.from_bytes(bytes(int(format(byte, "08b")[::-1], 2) for byte in file[start:start + row_bytes]), "big")'),
    switch("image-that-is-cut-is-padded", "An image whose rows are cut off is 113.", "pbm", "    if len(file) < after:\n        raise Refused(TRUNCATED)\n", "    file = file.ljust(after, b\"\\0\")\n"),
    switch("image-that-is-cut-is-none", "An image that ends within its header is 113.", "pbm", "        raise Refused(TRUNCATED if begins_header(file) else NOT_PBM)\n", "        raise Refused(NOT_PBM)\n"),
    switch("image-that-is-none-is-cut", "What begins no header is 111.", "pbm", "        raise Refused(TRUNCATED if begins_header(file) else NOT_PBM)\n", "        raise Refused(TRUNCATED)\n"),
    switch("image-with-more-behind-it", "Bytes behind the last row of an image are left.", "pbm", "    if len(file) < after:\n", "    if len(file) != after:\n"),
    switch("image-header-of-65537", "A header has 65,536 bytes at most.", "pbm", "LONGEST_HEADER = 65536", "LONGEST_HEADER = 65537"),
    switch("image-header-of-65536-is-none", "A header may have 65,536 bytes.", "pbm", "LONGEST_HEADER = 65536", "LONGEST_HEADER = 65535"),
    # JSON
    switch("json-of-126-levels", "JSON nests 127 levels.", "json_text", "DEEPEST = 127", "DEEPEST = 126"),
    switch("json-of-128-levels", "JSON nests no more than 127 levels.", "json_text", "DEEPEST = 127", "DEEPEST = 128"),
    switch("json-first-of-equal-keys", "Of equal keys the last one holds.", "json_text", "            members[key] = self.value(depth)\n", "            value = self.value(depth)\n            members.setdefault(key, value)\n"),
    switch("json-equal-keys-are-refused", "Equal keys are fine.", "json_text", "            members[key] = self.value(depth)\n", "            if key in members:\n                raise NotJson()\n            members[key] = self.value(depth)\n"),
    switch("json-with-a-comma-at-the-end", "A comma before the end is refused.", "json_text", "            if self.peek() != '\"':\n", "            if self.peek() == \"}\":\n                self.place += 1\n                return members\n            if self.peek() != '\"':\n"),
    switch("json-with-more-behind-it", "What stands behind the value is refused.", "json_text", "    if reader.place != len(reader.text):\n        raise NotJson()\n", ""),
    switch("json-minus-zero-is-whole", "-0 is no whole number.", "json_text", ' and spelled != "-0" and', " and"),
    switch("json-exponent-is-whole", "A number with an exponent is no whole one.", "json_text", "        number = float(spelled)\n", "        number = float(spelled)\n        if fraction is None and number == int(number):\n            return int(number)\n"),
    switch("json-great-numbers-are-whole", "A number beyond 64 bits is no whole one.", "json_text", "            if LEAST_WHOLE <= whole <= GREATEST_WHOLE:\n", "            if True:\n"),
    switch("json-string-with-control-characters", "A control character in a string is refused.", "json_text", "            if character < \" \":\n                raise NotJson()\n", ""),
    switch("json-unknown-escape", "An escape that is none is refused.", "json_text", "        if letter != \"u\":\n            raise NotJson()\n", "        if letter != \"u\":\n            return letter\n"),
    switch("json-lone-high-surrogate", "A high surrogate has a partner.", "json_text", "            if self.text[self.place:self.place + 2] != \"\\\\u\":\n                raise NotJson()\n", "            if self.text[self.place:self.place + 2] != \"\\\\u\":\n                return \"?\"\n"),
    switch("json-partner-of-any-kind", "The partner of a high surrogate is a low one.", "json_text", "            if not 0xDC00 <= low < 0xE000:\n                raise NotJson()\n", "            if not 0xDC00 <= low < 0xE000:\n                return \"?\"\n"),
    switch("json-lone-low-surrogate", "A low surrogate stands behind a high one.", "json_text", "        if 0xDC00 <= unit < 0xE000:\n            raise NotJson()\n", "        if 0xDC00 <= unit < 0xE000:\n            return \"?\"\n"),
    switch("json-surrogates-apart", "A pair of surrogates is one character.", "json_text", "            return chr(0x10000 + (unit - 0xD800) * 0x400 + (low - 0xDC00))\n", "            return \"??\"\n"),
    switch("json-number-beyond-floats", "A number beyond all floats is refused.", "json_text", "        if number in (float(\"inf\"), float(\"-inf\")):\n            raise NotJson()\n", ""),
    switch("json-number-with-a-leading-zero", "A number has no leading zero.", "json_text", "-?(?:0|[1-9][0-9]*)", "-?(?:[0-9]+)"),
    switch("json-number-with-a-plus", "A number has no plus.", "json_text", "-?(?:0|[1-9]", "[-+]?(?:0|[1-9]"),
    switch("json-without-a-colon", "A colon stands behind a key.", "json_text", "            self.take(\":\")\n", "            self.place += self.peek() == \":\"\n"),
    switch("json-without-commas", "Commas stand between the members of an object.", "json_text", "                return members\n            self.take(\",\")\n", "                return members\n            self.place += self.peek() == \",\"\n"),
    switch("json-arrays-without-commas", "Commas stand between the elements of an array.", "json_text", "                return elements\n            self.take(\",\")\n", "                return elements\n            self.place += self.peek() == \",\"\n"),
    switch("json-least-whole-number", "A whole number is -9,223,372,036,854,775,808 at least.", "json_text", "LEAST_WHOLE, GREATEST_WHOLE = -2 ** 63, 2 ** 64 - 1", "LEAST_WHOLE, GREATEST_WHOLE = -2 ** 64, 2 ** 64 - 1", "json_text", "MOST_CHARACTERS = 20", "MOST_CHARACTERS = 21"),
    switch("json-whole-numbers-of-63-bits", "A whole number may have 64 bits.", "json_text", "LEAST_WHOLE, GREATEST_WHOLE = -2 ** 63, 2 ** 64 - 1", "LEAST_WHOLE, GREATEST_WHOLE = -2 ** 63, 2 ** 63 - 1"),
    switch("json-with-a-mark-of-byte-order", "A mark of byte order is refused.", "json_text", 'text.decode("utf-8")', 'text.decode("utf-8-sig")'),
    switch("json-of-any-bytes", "Bytes that are no UTF-8 are refused.", "json_text", 'text.decode("utf-8")', 'text.decode("latin-1")'),
    switch("json-escapes-are-letters", "An escape of four digits is its character.", "json_text", "        return chr(unit)\n", "        return \"?\"\n"),
]
