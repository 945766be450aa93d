"""What the tests of completion share: a folder without faults that has most keys, what is offered in it, and its faults."""
from __future__ import annotations

from readers import Linter, reader
from repositories import FILE, WORKFLOWS

from actionlint_client.completion import Offer, offers
from actionlint_client.faults import Fault
from actionlint_client.project import Project
from actionlint_client.text import Point, Span

CALLED, ACTION = WORKFLOWS + "called.yml", "greet/action.yml"
FOLDER = {
    FILE: """name: Build
run-name: Build of ${{ github.actor }}
on:
  push:
    branches: [main, 'release/**']
    paths-ignore: ['docs/**']
  issues:
    types: [opened, closed]
  schedule:
    - cron: '0 5 * * *'
  workflow_dispatch:
    inputs:
      level:
        type: choice
        required: true
        options: [low, high]
  workflow_run:
    workflows: [Called]
    types: completed
permissions:
  contents: read
  issues: write
env:
  MODE: fast
defaults:
  run:
    shell: bash
concurrency:
  group: build-${{ github.ref }}
  cancel-in-progress: true
jobs:
  plan:
    runs-on: ubuntu-latest
    timeout-minutes: 5
    outputs:
      list: ${{ steps.list.outputs.names }}
    steps:
      - uses: actions/checkout@v4
        with:
          fetch-depth: 0
      - id: list
        name: List
        run: |
          echo "names=a" >> "$GITHUB_OUTPUT"
          echo "${{ inputs.level }}"
        shell: bash
      - if: steps.list.outcome == 'success' && always()
        uses: ./greet
        id: greet
        with:
          who: ${{ github.actor }}
          loud: true
      - run: echo ${{ steps.greet.outputs.text }} ${{ steps.list.conclusion }}
        continue-on-error: true
  test:
    needs: [plan]
    if: ${{ github.event_name == 'push' && needs.plan.result == 'success' }}
    strategy:
      fail-fast: false
      matrix:
        os: [ubuntu-latest, windows-latest]
        node: [18, 20]
        exclude:
          - os: windows-latest
            node: 18
    runs-on: ${{ matrix.os }}
    env:
      LIST: ${{ needs.plan.outputs.list }}
      KEY: ${{ secrets.KEY }}
    environment:
      name: test
      url: https://example.org
    container:
      image: node:${{ matrix.node }}
      credentials:
        username: me
        password: ${{ secrets.PASSWORD }}
    services:
      base:
        image: postgres
        ports: ['5432:5432']
    steps:
      - {run: 'echo ${{ env.LIST }} ${{ matrix.node }}', shell: sh}
      - run: echo ${{ contains(github.ref, 'x') }} ${{ runner.os }} ${{ hashFiles('a') }}
  call:
    needs: plan
    permissions: read-all
    uses: ./.github/workflows/called.yml
    with:
      name: x
      fast: true
    secrets:
      token: ${{ secrets.GITHUB_TOKEN }}
""",
    CALLED: """name: Called
on:
  workflow_call:
    inputs:
      name: {type: string, required: true, description: Whom to greet.}
      fast: {type: boolean}
    secrets:
      token: {required: true}
    outputs:
      done: {value: '${{ jobs.a.outputs.x }}'}
jobs:
  a:
    runs-on: ubuntu-latest
    outputs:
      x: ${{ inputs.name }}
    steps:
      - run: make
""",
    ACTION: """name: Greet
description: Says hello.
inputs:
  who:
    description: Whom to greet.
    required: true
  loud:
    default: 'false'
outputs:
  text:
    value: ${{ steps.say.outputs.text }}
runs:
  using: composite
  steps:
    - id: say
      run: echo "text=${{ inputs.who }}" >> "$GITHUB_OUTPUT"
      shell: bash
    - run: echo ${{ steps.say.outputs.text }}
      shell: bash
branding:
  icon: bell
""",
}


def project_of(texts: dict[str, str]) -> Project:
    files = {path: text.encode() for path, text in texts.items()}
    return Project(reader(), files.get, lambda: list(files))


def offered(text: str, file: str = FILE, folder: dict[str, str] = FOLDER, line_break: str = "\n") -> list[Offer]:
    """The offers at the last `|` of a text, in which lines end with a line break."""
    before, _, after = text.rpartition("|")
    return offers_between(before, after, file, folder, line_break)[1]


def offers_between(before: str, after: str, file: str = FILE, folder: dict[str, str] = FOLDER,
                   line_break: str = "\n") -> tuple[Span, list[Offer]]:
    """The offers between the two parts of a text, and the span that they replace."""
    return offers(project_of({**folder, file: (before + after).replace("\n", line_break)}), file, end_of(before))


def end_of(text: str) -> Point:
    """The end of a text. A byte order mark belongs to no line."""
    line = text.removeprefix("\ufeff").rpartition("\n")[2]
    return Point(text.count("\n"), len(line))


def put(text: str, span: Span, new: str) -> tuple[str, int, int]:
    """A text with an offer inserted, and where that begins and ends."""
    lines = text.split("\n")
    start = sum(len(line) + 1 for line in lines[:span.start.line]) + span.start.column
    end = sum(len(line) + 1 for line in lines[:span.end.line]) + span.end.column
    return text[:start] + new + text[end:], start, start + len(new)


def faults_after(linter: Linter, path: str, text: str) -> list[Fault]:
    """The faults of a file once it has this text."""
    linter.put(path, text)
    return linter.faults_in(path)
