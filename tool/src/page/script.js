// Filters, made from the rows that are there; #answer=13&file=box in the address selects. The page can be read without.
(function () {
  'use strict';
  var bar = document.getElementById('filters');
  var rows = Array.from(document.querySelectorAll('[data-answer]')).map(function (row) {
    var file = row.querySelector('.file').textContent.toLowerCase();
    return { row: row, answer: row.dataset.answer, words: row.querySelector('b').textContent, file: file };
  });
  var sorts = new Map();
  rows.forEach(function (row) {
    var sort = sorts.get(row.answer) || { words: row.words, count: 0 };
    sort.count += 1;
    sorts.set(row.answer, sort);
  });

  function chosen() {
    var hash = new URLSearchParams(location.hash.slice(1));
    return { answer: hash.get('answer') || '', file: hash.get('file') || '' };
  }

  function choose(answer, file) {
    var hash = new URLSearchParams();
    if (answer) hash.set('answer', answer);
    if (file) hash.set('file', file);
    history.replaceState(null, '', '#' + hash);
    show();
  }

  function button(answer, words, count) {
    var made = document.createElement('button');
    made.type = 'button';
    made.dataset.select = answer;
    made.textContent = words + ' (' + count + ')';
    made.addEventListener('click', function () { choose(answer, input.value); });
    bar.append(made);
  }

  function show() {
    var now = chosen(), shown = 0, file = now.file.toLowerCase();
    rows.forEach(function (row) {
      var fits = (!now.answer || row.answer === now.answer) && row.file.includes(file);
      if (row.row.hidden === fits) row.row.hidden = !fits;
      shown += fits;
    });
    bar.querySelectorAll('button').forEach(function (made) {
      made.setAttribute('aria-pressed', String(made.dataset.select === now.answer));
    });
    if (input.value !== now.file) input.value = now.file;
    line.textContent = shown + ' of ' + rows.length + ' shown';
  }

  function rank(answer) { return answer === 'unreadable' ? 1000 : Number(answer); }

  var input = document.createElement('input');
  input.type = 'search';
  input.placeholder = 'file name';
  input.setAttribute('aria-label', 'filter by file name');
  input.addEventListener('input', function () { choose(chosen().answer, input.value); });
  var line = document.createElement('div');
  line.setAttribute('role', 'status');
  button('', 'all', rows.length);
  Array.from(sorts.keys()).sort(function (a, b) { return rank(a) - rank(b); }).forEach(function (answer) {
    button(answer, sorts.get(answer).words, sorts.get(answer).count);
  });
  bar.append(input, line);
  bar.hidden = false;
  addEventListener('hashchange', show);
  show();
}());
