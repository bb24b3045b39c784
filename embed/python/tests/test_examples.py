"""The examples in the docstrings of the package."""
import doctest
import importlib
import pkgutil
import warnings

import pytest

import gamhilon

NEED_THE_LIBRARY = {'gamhilon.csl.rendering', 'gamhilon.csl.session', 'gamhilon.markdown_pages',
                    'gamhilon.sessions'}
TRIED_ELSEWHERE = {'gamhilon'}
# (test_results.py tries that of documents by the model of the library too)


def modules_with_examples():
    for found in pkgutil.walk_packages(gamhilon.__path__, 'gamhilon.'):
        spec = found.module_finder.find_spec(found.name, None)
        with open(spec.origin, encoding='utf-8') as file:
            if '>>> ' in file.read() and found.name not in TRIED_ELSEWHERE:
                yield found.name


@pytest.mark.parametrize('name', sorted(modules_with_examples()))
def test_the_examples_hold(name, request):
    if name in NEED_THE_LIBRARY:
        request.getfixturevalue('cites')
    with warnings.catch_warnings():
        warnings.simplefilter('error')
        failures, tried = doctest.testmod(importlib.import_module(name))
    assert tried >= 1 and failures == 0


@pytest.mark.parametrize('name', [
    'csl.render', 'csl.about', 'csl.variables_of', 'csl.Citation', 'parse_citations',
    'find_citations', 'markdown_pages.cite_page', 'references.loads', 'csl_json.entries',
    'styles.names', 'to_html', 'to_markdown', 'plain', 'render_document', 'GamhilonError',
])
def test_what_is_called_most_has_an_example(name):
    found = gamhilon
    for part in name.split('.'):
        found = getattr(found, part)
    assert '>>> ' in found.__doc__
