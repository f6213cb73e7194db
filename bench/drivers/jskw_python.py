"""Times the package of bindings/python: texts, as timing.py describes. PYTHONPATH names its folder."""

import jskw
from timing import answer_texts

answer_texts(lambda schema: jskw.Validator(schema, draft="7").is_valid)
