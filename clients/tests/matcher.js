// Reads printed fault lines from standard input and a matcher from its first argument: each line has to match, and the matched parts have
// to make up the line again. JavaScript reads the pattern here; GitHub's runner reads it with .NET.
const fs = require('fs');
const pattern = JSON.parse(fs.readFileSync(process.argv[2], 'utf8')).problemMatcher[0].pattern[0];
const regexp = new RegExp(pattern.regexp);
const lines = fs.readFileSync(0, 'utf8').split('\n').filter((line) => line !== '');
const wrong = lines.filter((line) => {
  const found = regexp.exec(line);
  const part = (name) => found[pattern[name]];
  return !found || `${part('file')}:${part('line')}:${part('column')}: ${part('message')} [${part('code')}]` !== line;
});
wrong.forEach((line) => console.log(`  not matched: ${line}`));
const right = wrong.length === 0 && lines.length > 0;
console.log(`case=clients-matcher output=${right ? 'expected' : 'wrong'} status=0 lines=${lines.length}`);
process.exit(right ? 0 : 1);
