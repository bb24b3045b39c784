"""Dates and formulas of hayagriva's YAML and of pages, as CSL-JSON has them. Dates are those of
EDTF."""
import sys

import pytest
from conftest import ROOT

from gamhilon.references.dates import csl_date
from gamhilon.references.latex_math import math_runs
from gamhilon.references.rich_text import csl_title

sys.path.append(f'{ROOT}/tests/references')

import edtf  # noqa: E402

# Dates

@pytest.mark.parametrize('text, wanted', edtf.KEPT)
def test_dates_that_are_kept_whole(text, wanted):
    assert csl_date(text) == (wanted, [])


@pytest.mark.parametrize('text, wanted, lost', edtf.LOST)
def test_dates_of_which_something_is_told(text, wanted, lost):
    assert csl_date(text) == (wanted, [lost])


# Formulas

@pytest.mark.parametrize('source, wanted', [
    ('x_1 + y', '<i>x</i><sub>1</sub>+<i>y</i>'), ('\\mathcal{O}(n^2)', '𝒪(<i>n</i><sup>2</sup>)'),
    ('\\mathbb{R}^n', 'ℝ<sup><i>n</i></sup>'), ('10^{-3}', '10<sup>−3</sup>'),
    ('\\mathrm{CO}_2', 'CO<sub>2</sub>'),
    ('a \\leq \\infty', '<i>a</i>≤∞'), ('\\mathbf{v}', '<b>v</b>'), ('\\text{a b}', 'a b'),
    ('x^\\alpha', '<i>x</i><sup><i>α</i></sup>'),
])
def test_formulas(source, wanted):
    assert csl_title(math_runs(source)) == wanted
