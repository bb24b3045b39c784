"""dask_folder.py FOLDER PAGES [--workers N] [--scheduler ADDRESS]: answers the documents of a
folder by Dask.

    python dask_folder.py documents pages --workers 4

Each file of FOLDER that ends with `.json` is a document (docs/DOCUMENT.md), and the unit of work: a
worker answers it as a whole, and PAGES gets a page of HTML. Without an address there is a local
cluster of N workers, each a process. Workers elsewhere need the package, and nothing of the
folders: documents and pages go over the network. It needs Debian's python3-distributed, or `pip
install distributed`.
"""
import argparse
import pathlib
import sys

from distributed import Client, LocalCluster, as_completed

import gamhilon

LIMITS = gamhilon.Limits(depth=100, elements=100000)


def page(document):
    """The page of a document, or why there is none. (This runs on a worker.)"""
    try:
        answer = gamhilon.render_document(document, limits=LIMITS)
    except gamhilon.Refused as refusal:
        return None, str(refusal)
    citations = [f'<p class="citation">{gamhilon.to_html(citation)}</p>\n'
                 for citation in answer.citations]
    return ''.join([*citations, gamhilon.bibliography_to_html(answer.bibliography)]), None


def answer_all(client, folder, pages):
    """Writes the pages of all documents as they come, and gives how many were refused."""
    refused = 0
    pages.mkdir(parents=True, exist_ok=True)
    paths = sorted(folder.glob('*.json'))
    waiting = {client.submit(page, path.read_bytes(), pure=False): path for path in paths}
    for future, (text, reason) in as_completed(waiting, with_results=True):
        path = waiting[future]
        if text is None:
            refused += 1
            print(f'{path}: {reason}', file=sys.stderr)
        else:
            (pages / f'{path.stem}.html').write_text(text, encoding='utf-8')
    print(f'{len(paths) - refused} of {len(paths)} documents answered')
    return refused


def main():
    words = argparse.ArgumentParser(description='Answers the documents of a folder by Dask.')
    words.add_argument('folder', type=pathlib.Path)
    words.add_argument('pages', type=pathlib.Path)
    words.add_argument('--workers', type=int, default=2, metavar='N')
    words.add_argument('--scheduler', metavar='ADDRESS', help='a cluster that is there already')
    said = words.parse_args()
    if said.scheduler:
        with Client(said.scheduler) as client:
            return bool(answer_all(client, said.folder, said.pages))
    with LocalCluster(n_workers=said.workers, threads_per_worker=1,
                      dashboard_address=None) as cluster:
        with Client(cluster) as client:
            return bool(answer_all(client, said.folder, said.pages))


if __name__ == '__main__':
    sys.exit(main())
