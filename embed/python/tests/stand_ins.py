"""What stands in for the shared library: one that is made up, a made-up style, and the model of the
driver; and what stands in for the program `gamhilon`."""
import importlib
import json
import os
import sys

from gamhilon import _library

MODEL = os.path.normpath(f'{os.path.dirname(os.path.abspath(__file__))}/../../../tests/model')


def of_model(name):
    """A module of tests/model, which finds its neighbours beside it."""
    sys.path.insert(0, MODEL)
    try:
        return importlib.import_module(name)
    finally:
        sys.path.remove(MODEL)


def put_program(path):
    """Puts an executable there that stands in for the program `gamhilon`: it prints its words."""
    path.write_text('#!/bin/sh\necho "the program: $*"\n')
    path.chmod(0o755)


class MadeUpLibrary:
    """Stands in for the shared library: ends each call with a status, or with a text as its answer,
    and counts the calls, those of gamhilon_check_limits by themselves."""

    def __init__(self, text=b'', status=0, fault=None, fault_status=0, ring=(0, 0, 0),
                 limits_status=0):
        self.text, self.status, self.ring, self.calls = text, status, ring, []
        self.limits_status, self.limits_calls = limits_status, []
        told = fault or {'pointer': '', 'found': 'an object', 'wanted': 'something else'}
        self.gamhilon_find_fault = lambda *given: self._put(json.dumps(told).encode(), fault_status,
                                                            *given)

    def gamhilon_render_text(self, *given):
        return self._put(self.text, self.status, *given)

    gamhilon_render_json = gamhilon_render_text

    def gamhilon_find_ring(self, document, document_length, ring):
        self.calls.append((document, 0))
        if self.status == 3:
            place = ring._obj
            place.of_bibliography, place.request, place.macro_index = self.ring
        return self.status

    def gamhilon_check_limits(self, document, document_length, depth, elements):
        assert document_length == len(document)
        self.limits_calls.append((document, depth, elements))
        return self.limits_status

    def _put(self, text, status, document, document_length, buffer, buffer_length, length):
        assert document_length == len(document)
        self.calls.append((document, buffer_length))
        length._obj.value = len(text) if status == 0 else 0
        if status != 0:
            return status
        if len(text) > buffer_length:
            return 6
        buffer[:len(text)] = text
        return 0


class ModelOfTheDriver(MadeUpLibrary):
    """Stands in for a library that has the driven call: the model of the repository answers it."""

    def gamhilon_drive(self, document, document_length, *buffer):
        kind, value = of_model('driven').drive(json.loads(document))
        return self._put(json.dumps({kind: value}).encode(), 0, document, document_length, *buffer)


class ModelOfTheLibrary(ModelOfTheDriver):
    """Stands in for the library: the model of the repository answers documents too. It has no
    limits, and doesn't tell where a document is wrong."""

    def gamhilon_render_text(self, document, *given):
        return self._answer(document, given, lambda made: made.answer()[1])

    def gamhilon_render_json(self, document, *given):
        return self._answer(document, given, lambda made: json.dumps(made.data()))

    def gamhilon_find_ring(self, document, document_length, ring):
        return self._status(document)

    def _answer(self, document, given, text_of):
        status = self._status(document)
        text = b'' if status else text_of(of_model('model').Document(json.loads(document))).encode()
        return self._put(text, status, document, *given)

    def _status(self, document):
        if of_model('form').refusal(document) is not None:
            return 2
        return of_model('model').Document(json.loads(document)).status()


class MadeUpStyle(MadeUpLibrary):
    """Stands in for a library that writes by style files: each cite is the author's family name,
    the title, and the locator, whatever the style says."""

    def gamhilon_cite(self, style, locales, items, citations, options, *buffer):
        works = {item['id']: item for item in json.loads(items.bytes)}
        made = {'citations': [{'content': _citation(works, cites)}
                              for cites in json.loads(citations.bytes)],
                'bibliography': {'items': [{'key': key, 'content': [_text(key)]} for key in works],
                                 'hanging_indent': True, 'line_spacing': 1, 'entry_spacing': 1}}
        return self._put(json.dumps(made).encode(), 0, items.bytes, items.length, *buffer)

    def gamhilon_find_cite_fault(self, style, *given):
        return self._put(b'{"warnings":[]}', 0, style.bytes, style.length, *given[-3:])

    def gamhilon_read_references(self, *given):
        """As the shared library reads them."""
        return _library._loaded().gamhilon_read_references(*given)


class MadeUpSessions(MadeUpStyle):
    """Stands in for a library that has sessions too, which nothing that is wrong comes to."""

    def __init__(self):
        super().__init__()
        self._sessions = {}

    def gamhilon_session_open(self, session, *texts):
        session._obj.held = len(self._sessions) + 1
        self._sessions[session._obj.held] = MadeUpSession()
        return 0

    def gamhilon_session_put_items(self, session, items):
        self._sessions[session._obj.held].items.update(
            {item['id']: item for item in json.loads(items.bytes)})
        return 0

    def gamhilon_session_set_citations(self, session, citations):
        self._sessions[session._obj.held].citations = json.loads(citations.bytes)
        return 0

    def gamhilon_session_answer(self, session, *buffer):
        held = self._sessions[session._obj.held]
        text = held.answer = held.answer or json.dumps(held.changes()).encode()
        status = self._put(text, 0, b'', 0, *buffer)
        if status == 0:
            held.answer = b''
        return status

    def gamhilon_session_warnings(self, session, *buffer):
        return self._put(b'{"warnings":[]}', 0, b'', 0, *buffer)

    def gamhilon_session_close(self, session):
        session._obj.held = 0


class MadeUpSession:
    """A session of the made-up style, and what it answered last."""

    def __init__(self):
        self.items, self.citations, self.answer = {}, [], b''
        self._last = {'citations': {}, 'bibliography': {}}

    def changes(self):
        """What changed since the answer before."""
        citations = {one['citationID']: {'content': _citation(self.items, one['citationItems'])}
                     for one in self.citations}
        cited = {cite['id'] for one in self.citations for cite in one['citationItems']}
        listed = {key: {'key': key, 'content': [_text(key)]} for key in self.items if key in cited}
        said = {'citations': self._changed('citations', citations, 'key', 'citation'),
                'bibliography': self._changed('bibliography', listed, 'id', 'item')}
        said['bibliography'].update(hanging_indent=True, line_spacing=1, entry_spacing=1)
        return said

    def _changed(self, part, now, key, whole):
        before, self._last[part] = self._last[part], now
        said = {'changed': [{key: name, whole: value} for name, value in now.items()
                            if before.get(name) != value],
                'gone': [name for name in before if name not in now]}
        return said if list(before) == list(now) else {**said, f'{key}s': list(now)}


class FaultyStyle(MadeUpStyle):
    """A made-up style that is refused where its text has a mark, and warned of where it has the
    words `odd here`, each with the line and the column of that."""

    def __init__(self, mark):
        super().__init__()
        self.mark = mark

    def gamhilon_cite(self, style, *given):
        if self.mark.encode() in style.bytes:
            return 2
        return super().gamhilon_cite(style, *given)

    def gamhilon_find_cite_fault(self, style, *given):
        text = style.bytes.decode()
        found = {'warnings': [_at(text, 'odd here', 'it is odd')] if 'odd here' in text else []}
        if self.mark in text:
            found['fault'] = _at(text, self.mark, 'it is wrong')
        return self._put(json.dumps(found).encode(), 0, style.bytes, style.length, *given[-3:])


def _at(text, mark, message):
    before = text[:text.index(mark)].split('\n')
    return {'file': 'style', 'message': message, 'line': len(before), 'column': len(before[-1]) + 1}


class NumberedStyle(MadeUpStyle):
    """Stands in for a library that writes by style files: works are numbered in the order in which
    they are cited, whatever the style says."""

    def gamhilon_cite(self, style, locales, items, citations, options, *buffer):
        asked = json.loads(citations.bytes)
        keys = list(dict.fromkeys(cite['id'] for cites in asked for cite in cites))
        numbers = {key: str(number) for number, key in enumerate(keys, 1)}
        made = {'citations': [{'content': _numbers(numbers, cites)} for cites in asked],
                'bibliography': {'items': [{'key': key, 'first_field': _text(f'[{number}] '),
                                            'content': [_text(key)]}
                                           for key, number in numbers.items()],
                                 'hanging_indent': False, 'line_spacing': 1, 'entry_spacing': 1}}
        return self._put(json.dumps(made).encode(), 0, items.bytes, items.length, *buffer)


def _numbers(numbers, cites):
    content = []
    for place, cite in enumerate(cites):
        if not cite.get('hidden'):
            content += [*([_text(', ')] if content else []),
                        {'meta': {'entry': place}, 'children': [_text(numbers[cite['id']])]}]
    return [_text('['), *content, _text(']')] if content else []


def _citation(works, cites):
    content = []
    for place, cite in enumerate(cites):
        if not cite.get('hidden'):
            content += [*([_text('; ')] if content else []),
                        {'meta': {'entry': place}, 'children': [_text(_cite(works, cite))]}]
    return [_text('('), *content, _text(')')] if content else []


def _cite(works, cite):
    work = works[cite['id']]
    names = [name['family'] for name in work.get('author', [])[:1]
             if isinstance(name, dict) and isinstance(name.get('family'), str)]
    if cite.get('author-only'):
        return ', '.join(names)
    told = [*(names if not cite.get('suppress-author') else []), str(work.get('title', '')),
            *([cite['locator']] if 'locator' in cite else [])]
    return cite.get('prefix', '') + ', '.join(told) + cite.get('suffix', '')


def _text(words):
    return {'text': words, 'font_style': 'normal', 'font_weight': 'normal'}
