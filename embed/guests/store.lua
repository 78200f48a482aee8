-- A small store, by Lua: records of a fixed size in a file, an index, updates in place, and a new file by a rename.
local SIZE, MANY, UPDATES = 64, 500, 2000
local state = 7

local function dice(below)
  state = (state * 1103515245 + 12345) % 2147483648
  return state % below
end

local function put(file, key, value)
  file:write(string.format("%-64s", key .. "=" .. value))
end

local file = assert(io.open("data.bin", "w+b"))
local places = {}
for number = 1, MANY do
  local key = "key" .. number
  places[key] = (number - 1) * SIZE
  put(file, key, dice(1000))
end

for _ = 1, UPDATES do
  local key = "key" .. dice(MANY) + 1
  file:seek("set", places[key])
  assert(file:read(SIZE):match("^(%w+)=") == key)
  file:seek("set", places[key])
  put(file, key, dice(1000000))
end

file:seek("set", 0)
local index, sum = assert(io.open("index.new", "w")), 0
for record in function() return file:read(SIZE) end do
  local key, value = record:match("^(%w+)=(%d+)")
  sum = sum + tonumber(value)
  index:write(key, " ", value, "\n")
end
index:close()
file:close()
assert(os.rename("index.new", "index.txt"))
assert(os.remove("data.bin"))
print(sum, os.getenv("NAME"), #arg, io.open("data.bin"))
for line in io.lines() do io.write("> ", line:upper(), "\n") end
io.stderr:write("done\n")
os.exit(5)
