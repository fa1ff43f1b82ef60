#!/usr/bin/env escript
%% A credit-control server of another make, in the plainest way: the diameter application of Erlang/OTP, which gives each request
%% a process of its own, and an ets table with the account. It debits EVENTs and tells whether a balance suffices. It keeps no
%% sessions, and knows no request that is sent again. Run by bench/front.py: front.escript PORT DICTIONARY OPENING.
-module(front).
-export([peer_up/3, peer_down/3, pick_peer/4, prepare_request/3, prepare_retransmit/3, handle_answer/4, handle_error/4, handle_request/3]).
-mode(compile).

-define(DIRECT_DEBITING, 0).
-define(CHECK_BALANCE, 2).
-define(SUCCESS, 2001).
-define(INVALID_AVP_VALUE, 5004).
-define(CREDIT_LIMIT_REACHED, 4012).
-define(USER_UNKNOWN, 5030).
-define(RATING_FAILED, 5031).

main([Port, Dictionary, Opening]) ->
    load(Dictionary),
    accounts = ets:new(accounts, [named_table, public, {write_concurrency, true}]),
    ets:insert(accounts, {{0, <<"491700000001">>}, list_to_integer(Opening)}),
    ok = diameter:start(),
    ok = diameter:start_service(?MODULE, [
        {'Origin-Host', "f1.example"},
        {'Origin-Realm', "ocs.example"},
        {'Host-IP-Address', [{127, 0, 0, 1}]},
        {'Vendor-Id', 0},
        {'Product-Name', "OTP"},
        {'Auth-Application-Id', [4]},
        {string_decode, false},
        {decode_format, map},
        {application, [{alias, cc}, {dictionary, cc_dictionary}, {module, ?MODULE}, {call_mutates_state, false}]}
    ]),
    {ok, _} = diameter:add_transport(?MODULE, {listen, [
        {transport_module, diameter_tcp},
        {transport_config, [{reuseaddr, true}, {nodelay, true}, {ip, {127, 0, 0, 1}}, {port, list_to_integer(Port)}]},
        %% a client that connects again is up at once
        {watchdog_config, [{okay, 0}]}
    ]}),
    receive after infinity -> ok end.

%% makes and loads the dictionary
load(File) ->
    {ok, Forms} = case diameter_make:codec(File, [forms, return]) of
        {ok, [It]} -> {ok, It};
        {ok, It} -> {ok, It}
    end,
    {ok, Module, Beam} = compile:forms(Forms, []),
    {module, Module} = code:load_binary(Module, "cc_dictionary", Beam).

%% of a diameter_packet the message is the fourth element, and the faults that OTP has found the sixth
handle_request(Packet, _, _) ->
    case element(6, Packet) of
        [] -> {reply, ['CCA' | answer(tl(element(4, Packet)))]};
        _ -> {answer_message, ?INVALID_AVP_VALUE}
    end.

answer(#{'Session-Id' := Session, 'CC-Request-Type' := Type, 'CC-Request-Number' := Number} = Request) ->
    maps:merge(charged(Request), #{
        'Session-Id' => Session,
        'Origin-Host' => "f1.example",
        'Origin-Realm' => "ocs.example",
        'Auth-Application-Id' => 4,
        'CC-Request-Type' => Type,
        'CC-Request-Number' => Number
    }).

%% what comes of a request: its Result-Code, and what it grants or tells
charged(#{'Requested-Action' := [Action], 'Multiple-Services-Credit-Control' := Services} = Request) ->
    Costs = [cost(Service) || Service <- Services],
    case {account(Request), lists:member(unknown, Costs)} of
        {unknown, _} -> #{'Result-Code' => ?USER_UNKNOWN};
        {_, true} -> #{'Result-Code' => ?RATING_FAILED};
        {Account, false} -> acted(Action, Account, lists:sum(Costs), Services)
    end;
charged(_) ->
    #{'Result-Code' => ?INVALID_AVP_VALUE}.

acted(?DIRECT_DEBITING, Account, Cost, Services) ->
    case debit(Account, Cost) of
        true -> #{'Result-Code' => ?SUCCESS, 'Multiple-Services-Credit-Control' => [granted(Service) || Service <- Services]};
        false -> #{'Result-Code' => ?CREDIT_LIMIT_REACHED}
    end;
acted(?CHECK_BALANCE, Account, Cost, _) ->
    [{_, Balance}] = ets:lookup(accounts, Account),
    #{'Result-Code' => ?SUCCESS, 'Check-Balance-Result' => [if Balance >= Cost -> 0; true -> 1 end]};
acted(_, _, _, _) ->
    #{'Result-Code' => ?INVALID_AVP_VALUE}.

%% takes the cost, and gives it back where it was too much
debit(Account, Cost) ->
    case ets:update_counter(accounts, Account, -Cost) of
        Left when Left >= 0 -> true;
        _ -> ets:update_counter(accounts, Account, Cost), false
    end.

account(#{'Subscription-Id' := [#{'Subscription-Id-Type' := Type, 'Subscription-Id-Data' := Data} | _]}) ->
    case ets:member(accounts, {Type, Data}) of
        true -> {Type, Data};
        false -> unknown
    end;
account(_) ->
    unknown.

%% the tariff: blocks of 1000 octets of service 10, at 5 each
cost(#{'Rating-Group' := [10], 'Requested-Service-Unit' := [#{'CC-Total-Octets' := [Octets]}]}) -> 5 * ((Octets + 999) div 1000);
cost(_) -> unknown.

granted(#{'Rating-Group' := Group, 'Requested-Service-Unit' := [Units]}) ->
    #{'Granted-Service-Unit' => [Units], 'Rating-Group' => Group, 'Result-Code' => [?SUCCESS]}.

peer_up(_, _, State) -> State.
peer_down(_, _, State) -> State.
pick_peer(_, _, _, _) -> false.
prepare_request(Packet, _, _) -> {send, Packet}.
prepare_retransmit(Packet, _, _) -> {send, Packet}.
handle_answer(Packet, _, _, _) -> Packet.
handle_error(Reason, _, _, _) -> {error, Reason}.
