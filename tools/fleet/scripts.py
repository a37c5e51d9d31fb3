"""What the publisher does in Redis atomically: scripts that Redis runs.

Each first checks that the lease is the publisher's own: a publisher that was held up, and whose
lease another has taken meanwhile, changes nothing. What may be refused is read before the first
write.
"""

# KEYS lease, publisher, boot, seen; ARGV token, milliseconds, host with port, machine, boot,
# microseconds since then, and 1 to publish what another place has published before. Takes the
# lease, and returns what stands for the publisher, or nothing. Else returns whose lease it is, and
# for how long; or nothing and for whom the name is. A lease that would last longer than one lasts
# is cut, as its holder would: Redis' clock was set back. A publisher whose machine isn't told may
# be any of its host. Of another boot it is another machine if this one was up at its last sign.
TAKE = """
local holder = redis.call('GET', KEYS[1])
local last = redis.call('GET', KEYS[2])
local boot = redis.call('GET', KEYS[3])
local seen = tonumber(redis.call('GET', KEYS[4]) or '') or 0
local clock = redis.call('TIME')
local now = tonumber(clock[1]) * 1000000 + tonumber(clock[2])
if holder and holder ~= ARGV[1] then
    local left, most = redis.call('PTTL', KEYS[1]), tonumber(ARGV[2])
    if left > most then redis.call('PEXPIRE', KEYS[1], most) end
    return {holder, math.min(left, most)}
end
local host, machine = string.match(last or '', '^([^ ]*) ?(%x*)')
local is_other_boot = boot and boot ~= '' and ARGV[5] ~= '' and boot ~= ARGV[5]
local is_twin = is_other_boot and seen <= now and seen > now - tonumber(ARGV[6])
local is_own = not last or
    host == ARGV[3] and (machine == '' or machine == ARGV[4]) and not is_twin
if not is_own and ARGV[7] ~= '1' then return {'', last} end
redis.call('SET', KEYS[1], ARGV[1], 'PX', ARGV[2])
redis.call('SET', KEYS[3], ARGV[5])
return {is_own and last or ''}
"""

# KEYS lease, seen, newest, versions, tiles, publisher; ARGV token, milliseconds, order, count,
# time, publisher. Keeps the lease, and notes the time where this order is still the newest. 1, or 0
# without the lease, or 2 where the newest is another, or its record, tiles or publisher are gone;
# then the time now, which is noted where the given one isn't yet: Redis' clock was set back.
KEEP = """
local clock = redis.call('TIME')
local now = string.format('%s%06d', clock[1], clock[2])
if redis.call('GET', KEYS[1]) ~= ARGV[1] then return {0, now} end
local newest = redis.call('GET', KEYS[3])
local is_whole = ARGV[3] == newest and redis.call('HEXISTS', KEYS[4], newest) == 1
    and redis.call('HLEN', KEYS[5]) >= tonumber(ARGV[4]) and redis.call('GET', KEYS[6]) == ARGV[6]
redis.call('PEXPIRE', KEYS[1], ARGV[2])
if ARGV[3] == '' then return {1, now} end
if not is_whole then return {2, now} end
local is_over = tonumber(ARGV[5]) <= tonumber(now)
redis.call('SET', KEYS[2], is_over and ARGV[5] or now)
return {1, now}
"""

# KEYS lease, newest, versions, tiles, seen, publisher; ARGV token, order, record, time, publisher,
# channel, and the orders of versions that are dropped. Shows a version, all of whose tiles are
# there, to followers.
COMMIT = """
if redis.call('GET', KEYS[1]) ~= ARGV[1] then return 'lease' end
local newest = redis.call('GET', KEYS[2])
if newest and tonumber(newest) >= tonumber(ARGV[2]) then return 'order' end
local record = ARGV[3]
for at = string.find(record, '\\n', 1, true) + 1, #record - 32, 32 do
    local tile = string.sub(record, at, at + 31)
    if redis.call('HEXISTS', KEYS[4], tile) == 0 then return 'tiles' end
end
redis.call('GET', KEYS[5])
redis.call('GET', KEYS[6])
redis.call('HSET', KEYS[3], ARGV[2], record)
redis.call('SET', KEYS[2], ARGV[2])
redis.call('SET', KEYS[5], ARGV[4])
redis.call('SET', KEYS[6], ARGV[5])
for at = 7, #ARGV do redis.call('HDEL', KEYS[3], ARGV[at]) end
redis.call('PUBLISH', ARGV[6], ARGV[2])
return 'done'
"""

# KEYS lease, tiles; ARGV token and tiles. Drops tiles that no kept version names.
DROP = """
if redis.call('GET', KEYS[1]) ~= ARGV[1] then return 0 end
for at = 2, #ARGV do redis.call('HDEL', KEYS[2], ARGV[at]) end
return 1
"""

# KEYS lease; ARGV token. Gives the lease up.
LEAVE = """
if redis.call('GET', KEYS[1]) == ARGV[1] then redis.call('DEL', KEYS[1]) end
return 1
"""
