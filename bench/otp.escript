#!/usr/bin/env escript
%% A client of another make: the diameter application of Erlang/OTP. It connects to the relay of examples/live as
%% c1.example, sends an EVENT, an INITIAL and an UPDATE, is asked whether it lives, writes "restart" and waits until the relay was
%% killed and started again. Then it asks whether the relay lives, and sends the TERMINATION, behind which the relay disconnects.
%% It writes "once more" then, waits until the relay is there again, and disconnects itself. A line for each answer, and for what OTP
%% has counted; status 1 where something is not as it is to be. Run by bench/otp, and by bench/otp_model.py with the word "model": the
%% model asks nobody whether it lives, and does not disconnect.
-module(otp).
-export([peer_up/3, peer_down/3, pick_peer/4, prepare_request/3, prepare_retransmit/3, handle_answer/4, handle_error/4, handle_request/3]).
-mode(compile).

-define(SERVICE, ?MODULE).

main([Port, Dictionary]) ->
    main([Port, Dictionary, "relay"]);
main([Port, Dictionary, Other]) ->
    load(Dictionary),
    ok = diameter:start(),
    ok = diameter:start_service(?SERVICE, [
        {'Origin-Host', "c1.example"},
        {'Origin-Realm', "ocs.example"},
        {'Vendor-Id', 0},
        {'Product-Name', "OTP"},
        {'Auth-Application-Id', [4]},
        {string_decode, false},
        {decode_format, map},
        {application, [{alias, cc}, {dictionary, cc_dictionary}, {module, ?MODULE}]}
    ]),
    true = diameter:subscribe(?SERVICE),
    {ok, _} = diameter:add_transport(?SERVICE, {connect, [
        {transport_module, diameter_tcp},
        {transport_config, [{raddr, {127, 0, 0, 1}}, {rport, list_to_integer(Port)}, {reuseaddr, true}]},
        {connect_timer, 500},
        {watchdog_timer, 6000},
        {watchdog_config, [{okay, 0}, {suspect, 1}]}
    ]}),
    wait(up),
    Session = diameter:session_id("c1.example"),
    Event = diameter:session_id("c1.example"),
    expect("EVENT", 2001, 3200, call(Event, 4, 0, #{'Requested-Action' => [0]}, [#{asked => 3200}])),
    expect("INITIAL", 2001, 5000, call(Session, 1, 0, #{}, [#{asked => none}])),
    expect("UPDATE", 2001, 5000, call(Session, 2, 1, #{}, [#{asked => none, used => 4000}])),
    asked_by(Other),
    io:format("restart~n"),
    wait(down),
    wait(up),
    answered_by(Other),
    expect("TERMINATION", 2001, none, call(Session, 3, 2, #{}, [#{used => 3000}])),
    left_by(Other),
    ok = diameter:stop_service(?SERVICE),
    io:format("done~n"),
    halt(0).

%% the relay asks whether its peers live
asked_by("relay") ->
    timer:sleep(4500),
    counted("watchdogs received and answered", 3, [{{0, 280, 1}, recv}, {{0, 280, 0}, send}]);
asked_by("model") ->
    ok.

%% and answers who asks it
answered_by("relay") ->
    timer:sleep(18000),
    counted("watchdogs sent and answered", 2, [{{0, 280, 1}, send}, {{0, 280, 0}, recv}]);
answered_by("model") ->
    ok.

%% it disconnects behind so many answers, and is started again
left_by("relay") ->
    wait(down),
    io:format("once more~n"),
    wait(up);
left_by("model") ->
    ok.

%% makes and loads the dictionary
load(File) ->
    {ok, Forms} = case diameter_make:codec(File, [forms, return]) of
        {ok, [It]} -> {ok, It};
        {ok, It} -> {ok, It}
    end,
    {ok, Module, Beam} = compile:forms(Forms, []),
    {module, Module} = code:load_binary(Module, "cc_dictionary", Beam).

%% waits until the relay is up or down
wait(What) ->
    receive
        {diameter_event, ?SERVICE, Event} when element(1, Event) =:= What -> ok;
        {diameter_event, ?SERVICE, _} -> wait(What)
    after 40000 ->
        io:format("not ~p after 40 s~n", [What]),
        halt(1)
    end.

%% that OTP has counted so many of each of these, on all connections
counted(What, Least, Counters) ->
    All = lists:append([Counts || {_, Counts} <- diameter:service_info(?SERVICE, statistics)]),
    Sums = [lists:sum([Count || {Key, Count} <- All, counts(Key, Counter)]) || Counter <- Counters],
    io:format("~s: ~p~n", [What, Sums]),
    case lists:all(fun(Sum) -> Sum >= Least end, Sums) of
        true -> ok;
        false -> io:format("and not ~p of each~n", [Least]), halt(1)
    end.

%% answers are counted with their Result-Code too, which is left out here
counts(Key, Key) -> true;
counts(_, _) -> false.

call(Session, Type, Number, More, Services) ->
    Request = maps:merge(More, #{
        'Session-Id' => Session,
        'Origin-Host' => "c1.example",
        'Origin-Realm' => "ocs.example",
        'Destination-Realm' => "ocs.example",
        'Auth-Application-Id' => 4,
        'Service-Context-Id' => "32251@3gpp.org",
        'CC-Request-Type' => Type,
        'CC-Request-Number' => Number,
        'Subscription-Id' => [#{'Subscription-Id-Type' => 0, 'Subscription-Id-Data' => "491700000001"}],
        'Multiple-Services-Credit-Control' => [service(It) || It <- Services]
    }),
    diameter:call(?SERVICE, cc, ['CCR' | Request], [{timeout, 5000}]).

service(It) ->
    Asked = case It of
        #{asked := none} -> #{'Requested-Service-Unit' => [#{}]};
        #{asked := Units} -> #{'Requested-Service-Unit' => [#{'CC-Total-Octets' => [Units]}]};
        #{} -> #{}
    end,
    Used = case It of
        #{used := Count} -> #{'Used-Service-Unit' => [#{'CC-Total-Octets' => [Count]}]};
        #{} -> #{}
    end,
    maps:merge(#{'Rating-Group' => [10]}, maps:merge(Asked, Used)).

%% an answer that OTP has read without a fault, with this Result-Code, and so many octets granted
expect(Name, Code, Units, {answer, ['CCA' | Answer], []}) ->
    Code = maps:get('Result-Code', Answer),
    Granted = [Octets || It <- maps:get('Multiple-Services-Credit-Control', Answer, []),
                         Grant <- list(maps:get('Granted-Service-Unit', It, [])),
                         Octets <- list(maps:get('CC-Total-Octets', Grant, []))],
    true = Granted =:= case Units of none -> []; _ -> [Units] end,
    io:format("~s: ~p, granted ~p~n", [Name, Code, Granted]);
expect(Name, _, _, Other) ->
    io:format("~s: ~p~n", [Name, Other]),
    halt(1).

list(It) when is_list(It) -> It;
list(It) -> [It].

%% what OTP calls
peer_up(_, _, State) -> State.
peer_down(_, _, State) -> State.
pick_peer([Peer | _], _, _, _) -> {ok, Peer}.
prepare_request(Packet, _, _) -> {send, Packet}.
prepare_retransmit(Packet, _, _) -> {send, Packet}.
%% of a diameter_packet the message is the fourth element, and the faults that OTP has found the sixth
handle_answer(Packet, _, _, _) -> {answer, element(4, Packet), element(6, Packet)}.
handle_error(Reason, _, _, _) -> {error, Reason}.
handle_request(_, _, _) -> discard.
