"""The limits that carbon_account.h names."""

import pathlib
import re

HEADER = pathlib.Path(__file__).resolve().parent / "include/carbon_account.h"
SIZES = {name: int(value) for name, value in re.findall(r"^    CARBON_(\w+) = (\d+)", HEADER.read_text(), re.MULTILINE)}
MOST_AREAS, MOST_SUBS = SIZES["MOST_AREAS"], SIZES["MOST_SUBS"]
