"""What Redis does at once: a request enters, answers are told, replies are kept, a snapshot takes another's place.

Where Redis has no memory left it lets no more lines enter, and does all else: that is what frees memory.
"""

_WHEN_FULL = "#!lua flags=allow-oom\n"

# The settings of a grid are written where they lack, and given: shards, replicas, limit, and the mark by which this
# grid is known, which is not there where one of the others lacks.
# The version that made it stands beside them. Grids of before have none.
# KEYS: the hash of settings. ARGV: a mark, a version, and to make a grid shards, replicas, limit.
SETTINGS = _WHEN_FULL + """
if ARGV[3] and redis.call('EXISTS', KEYS[1]) == 0 then redis.call('HSET', KEYS[1], 'version', ARGV[2]) end
for at, name in ipairs({'shards', 'replicas', 'limit'}) do
  if ARGV[at + 2] then redis.call('HSETNX', KEYS[1], name, ARGV[at + 2]) end
  if redis.call('HEXISTS', KEYS[1], name) == 0 then return {} end
end
redis.call('HSETNX', KEYS[1], 'mark', ARGV[1])
return redis.call('HMGET', KEYS[1], 'shards', 'replicas', 'limit', 'mark', 'version')
"""

# A role gives a sign of life, in Redis's memory alone, and hears the last ones of others, each with the milliseconds
# that Redis's clock had then; nothing where the grid is another one. A worker that is ready needs no old requests.
# KEYS: the prefix of the grid. ARGV: the grid's mark, role, number of the request that it is at, state, other roles.
SIGN = _WHEN_FULL + """
redis.set_repl(redis.REPL_NONE)
local prefix, role = KEYS[1], ARGV[2]
if redis.call('HGET', prefix .. ':settings', 'mark') ~= ARGV[1] then return false end
local time = redis.call('TIME')
local now = time[1] * 1000 + math.floor(time[2] / 1000)
redis.call('HSET', prefix .. ':signs', role, string.format('%.0f', now) .. ' ' .. ARGV[3] .. ' ' .. ARGV[4])
if ARGV[4] == 'ready' then redis.call('HDEL', prefix .. ':needs', role) end
local heard = {}
for at = 5, #ARGV do heard[at - 4] = redis.call('HGET', prefix .. ':signs', ARGV[at]) or '' end
return heard
"""

# A client begins a life under its name, where its last one is that which it knows, or has begun this one already. Gives
# the name's life, and where that is the new one the last line that entered.
# KEYS: the prefix of the grid. ARGV: client, the life before (or nothing), the new life, for how many milliseconds.
BEGIN = _WHEN_FULL + """
local prefix, client, life = KEYS[1], ARGV[1], ARGV[3]
local there = redis.call('HGET', prefix .. ':lives', client) or ''
if there ~= ARGV[2] and there ~= life then return {there} end
local time = redis.call('TIME')
redis.call('HSET', prefix .. ':lives', client, life)
redis.call('ZADD', prefix .. ':over', time[1] * 1000 + ARGV[4], client)
return {life, redis.call('HGET', prefix .. ':clients', client) or '0:0'}
"""

# A client's life goes on. Gives the name's life, or nothing where the grid is another one.
# KEYS: the prefix of the grid. ARGV: client, its life, the grid's mark, for how many milliseconds.
RENEW = _WHEN_FULL + """
local prefix, client = KEYS[1], ARGV[1]
if redis.call('HGET', prefix .. ':settings', 'mark') ~= ARGV[3] then return false end
local there = redis.call('HGET', prefix .. ':lives', client) or ''
local time = redis.call('TIME')
if there == ARGV[2] then redis.call('ZADD', prefix .. ':over', time[1] * 1000 + ARGV[4], client) end
return there
"""

# Clients are forgotten with all that is kept for them: one, or some of those whose life is over. Gives their names.
# KEYS: the prefix of the grid. ARGV: the client, or nothing.
FORGET = _WHEN_FULL + """
local prefix, time = KEYS[1], redis.call('TIME')
local names = ARGV[1] and {ARGV[1]} or
  redis.call('ZRANGEBYSCORE', prefix .. ':over', '-inf', time[1] * 1000, 'LIMIT', 0, 64)
for _, name in ipairs(names) do
  redis.call('ZREM', prefix .. ':over', name)
  redis.call('HDEL', prefix .. ':clients', name)
  redis.call('HDEL', prefix .. ':lives', name)
  redis.call('UNLINK', prefix .. ':replies:' .. name, prefix .. ':lines:' .. name)
end
return names
"""

# A line enters, or is seen to have entered, or is refused its turn where the line before it did not enter, or where
# another life has the client's name. Gives the id of the request, `seen`, `gap`, or `life` and that life.
# KEYS: the prefix of the grid. ARGV: client, line's number, number of the client's line before it, checksum, kind,
# line, the client's life, the line's digest, and for each shard that it names ids of: shard, how many, the ids, each
# once.
# The sets of live ids say whether there is room, so that a line that is full changes no shard.
ENTER = """
local prefix, client, number, before = KEYS[1], ARGV[1], tonumber(ARGV[2]), tonumber(ARGV[3])
local kind, line = ARGV[5], ARGV[6]
local life = redis.call('HGET', prefix .. ':lives', client) or ''
if life ~= ARGV[7] then return 'life ' .. life end
local last = redis.call('HGET', prefix .. ':clients', client)
local at = last and tonumber(string.match(last, '^%d+')) or 0
if number <= at then return 'seen' end
if before ~= at then return 'gap' end
local settings = redis.call('HMGET', prefix .. ':settings', 'shards', 'limit')
local shards, limit = tonumber(settings[1]), tonumber(settings[2])
local parts, next = {}, 9
while ARGV[next] do
  local count = tonumber(ARGV[next + 1])
  local ids = {}
  for index = 1, count do ids[index] = ARGV[next + 1 + index] end
  parts[#parts + 1] = {key = prefix .. ':ids:' .. ARGV[next], ids = ids}
  next = next + 2 + count
end
if kind == 'r' then
  local total, is_full = 0, false
  for shard = 0, shards - 1 do total = total + redis.call('SCARD', prefix .. ':ids:' .. shard) end
  for _, part in ipairs(parts) do
    local fresh = 0
    for _, there in ipairs(redis.call('SMISMEMBER', part.key, unpack(part.ids))) do fresh = fresh + 1 - there end
    total = total + fresh
    if fresh > 0 and redis.call('SCARD', part.key) + fresh > 1000000 then is_full = true end
  end
  if total > limit or is_full then kind = 'f' end
end
if kind == 'r' then
  for _, part in ipairs(parts) do redis.call('SADD', part.key, unpack(part.ids)) end
elseif kind == 'd' then
  for _, part in ipairs(parts) do redis.call('SREM', part.key, unpack(part.ids)) end
elseif kind == 'c' then
  for shard = 0, shards - 1 do redis.call('DEL', prefix .. ':ids:' .. shard) end
end
local count = redis.call('INCR', prefix .. ':number')
local place = redis.call('XADD', prefix .. ':requests', '*', 'c', client, 'n', ARGV[2], 'm', count, 'k', kind, 'l',
  kind == 'f' and '' or line)
redis.call('HSET', prefix .. ':clients', client, ARGV[2] .. ':' .. ARGV[4])
redis.call('XADD', prefix .. ':lines:' .. client, place, 'n', ARGV[2], 'd', ARGV[8])
return place
"""

# A worker tells answers: they stand in Redis's memory and are sent to the clients that listen, and the file of Redis
# hears of none of it, so that nobody waits for the disk. Where Redis has other answers of the worker than it says,
# nothing is told. Gives up to where the worker has told, and up to where all is kept.
# KEYS: the prefix of the grid. ARGV: worker, shard, up to where the worker told before, up to where it has now, and for
# each answer: the request's id, the client, the number of its line, the request's number, its kind, and the answer.
TELL = _WHEN_FULL + """
redis.set_repl(redis.REPL_NONE)
local prefix, worker, shard = KEYS[1], ARGV[1], ARGV[2]
local told = redis.call('HGET', prefix .. ':answered', worker) or '0-0'
local kept = redis.call('HGET', prefix .. ':kept', 'at') or '0-0'
if told ~= ARGV[3] then return {told, kept} end
for at = 5, #ARGV, 6 do
  local place, client, kind, answer = ARGV[at], ARGV[at + 1], ARGV[at + 4], ARGV[at + 5]
  redis.call('XADD', prefix .. ':answers:' .. worker, place, 'c', client, 'n', ARGV[at + 2], 'm', ARGV[at + 3],
    'k', kind, 'a', answer)
  redis.call('PUBLISH', prefix .. ':told:' .. client, place .. ' ' .. shard .. ' ' .. kind .. '\\n' .. answer)
end
redis.call('HSET', prefix .. ':answered', worker, ARGV[4])
return {ARGV[4], kept}
"""

# What was told of the next requests is kept, as far as all shards have told it: each reply in its parts, under its
# request's id, and at once with them up to where all is kept. A client that was forgotten needs no replies. Answers
# that are kept are dropped from memory. Gives whether there may be more.
# KEYS: the prefix of the grid. ARGV: how many requests at most, how many bytes about.
KEEP = _WHEN_FULL + """
local prefix, most, room = KEYS[1], tonumber(ARGV[1]), tonumber(ARGV[2])
local settings = redis.call('HMGET', prefix .. ':settings', 'shards', 'replicas')
if not settings[2] then return 0 end
local shards, replicas = tonumber(settings[1]), tonumber(settings[2])
local kept = redis.call('HMGET', prefix .. ':kept', 'at', 'number')
local at, number, count = kept[1] or '0-0', tonumber(kept[2] or '0'), 0

local function answers(shard, first, last)
  local key = prefix .. ':answers:' .. shard .. ':' .. (number + 1) % replicas
  return redis.call('XRANGE', key, first, last, 'COUNT', 1)[1]
end

local function keep_next()
  local first = answers(0, '(' .. at, '+')
  if not first or tonumber(first[2][6]) ~= number + 1 then return false end
  local client = first[2][2]
  local fields = {'n', first[2][4], 'k', first[2][8]}
  for shard = 0, shards - 1 do
    local told = shard == 0 and first or answers(shard, first[1], first[1])
    if not told then return false end
    fields[#fields + 1] = shard
    fields[#fields + 1] = told[2][10]
    room = room - #told[2][10]
  end
  if redis.call('HEXISTS', prefix .. ':clients', client) == 1 then
    redis.call('XADD', prefix .. ':replies:' .. client, first[1], unpack(fields))
  end
  at, number, count = first[1], number + 1, count + 1
  return true
end

while count < most and room > 0 and keep_next() do end
if count == 0 then return 0 end
local has_more = (count == most or room <= 0) and 1 or 0
redis.call('HSET', prefix .. ':kept', 'at', at, 'number', number)
redis.set_repl(redis.REPL_NONE)
for shard = 0, shards - 1 do
  for replica = 0, replicas - 1 do
    redis.call('XTRIM', prefix .. ':answers:' .. shard .. ':' .. replica, 'MINID', at)
  end
end
return has_more
"""

# A line is put behind so many of a snapshot that takes no place yet, which goes with time where it never does.
# KEYS: the snapshot. ARGV: how many lines it has, the line, its seconds.
PUSH = _WHEN_FULL + """
if redis.call('LLEN', KEYS[1]) ~= tonumber(ARGV[1]) then return 0 end
redis.call('RPUSH', KEYS[1], ARGV[2])
redis.call('EXPIRE', KEYS[1], ARGV[3])
return 1
"""

# A worker needs the requests behind a place. KEYS: the hash of needs. ARGV: worker, place.
NEED = _WHEN_FULL + """
return redis.call('HSET', KEYS[1], ARGV[1], ARGV[2])
"""

# A snapshot takes the place of the one that it was made from, and of no other.
# KEYS: the hash of snapshots, the new snapshot. ARGV: shard, what stood there (or nothing), what is to stand there, the
# key of the old snapshot (or nothing).
REPLACE = _WHEN_FULL + """
local there = redis.call('HGET', KEYS[1], ARGV[1]) or ''
if there ~= ARGV[2] or redis.call('EXISTS', KEYS[2]) == 0 then return 0 end
redis.call('HSET', KEYS[1], ARGV[1], ARGV[3])
redis.call('PERSIST', KEYS[2])
if ARGV[4] ~= '' then redis.call('DEL', ARGV[4]) end
return 1
"""
