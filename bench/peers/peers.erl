%% Three ways to wait for ever, with processes. A promise is a message that its owner sends, and a join waits for the
%% message that a process has ended.
-module(peers).
-export([main/1]).

%% Two tasks that wait for each other's promise, while a third runs on.
cycle() ->
    One = spawn(fun() -> receive {q, Other, Value} -> Other ! {p, Value} end end),
    spawn(fun() -> receive {p, Value} -> One ! {q, self(), Value} end end),
    runs_on().

runs_on() -> timer:sleep(1), runs_on().

%% A promise that nobody sets: its owner ends without.
unset() ->
    spawn(fun() -> ended end),
    receive {p, Value} -> io:format("~p~n", [Value]) end.

%% A task that joins itself.
itself() ->
    Ended = erlang:monitor(process, self()),
    receive {'DOWN', Ended, process, _, _} -> ok end.

main(["cycle"]) -> cycle();
main(["unset"]) -> unset();
main(["itself"]) -> itself().
