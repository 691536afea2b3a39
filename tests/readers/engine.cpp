// engine: prints new orders as QuickFIX's own session sends them from port P to venue V, one a line, with | for SOH: two for a bond, and
// two sells short of shares on margin. Only the order's fields are given here: header, number, SendingTime, BodyLength and CheckSum are the engine's, with its default settings, which stamp
// SendingTime (52) to the millisecond. TransactTime (60) of the first order of two has no milliseconds and of the
// second has them.
#include <algorithm>
#include <iostream>
#include <set>
#include <string>

#include <quickfix/Application.h>
#include <quickfix/DataDictionaryProvider.h>
#include <quickfix/MessageStore.h>
#include <quickfix/Session.h>
#include <quickfix/TimeRange.h>
#include <quickfix/fix42/NewOrderSingle.h>

// What the engine is about to send.
class Printed : public FIX::NullApplication {
    void toApp(FIX::Message &message, const FIX::SessionID &) throw(FIX::DoNotSend) override
    {
        std::string text = message.toString();
        std::replace(text.begin(), text.end(), '\001', '|');
        std::cout << text << '\n';
    }
};

static FIX42::NewOrderSingle order(const std::string &id, const char *symbol, char side, double price, const FIX::TransactTime &time)
{
    FIX42::NewOrderSingle m(FIX::ClOrdID(id), FIX::HandlInst('1'), FIX::Symbol(symbol), FIX::Side(side), time, FIX::OrdType('2'));
    m.set(FIX::OrderQty(100));
    m.set(FIX::Price(price));
    m.set(FIX::Rule80A('A'));
    m.set(FIX::TimeInForce('0'));
    m.setField(8060, "1");
    return m;
}

int main()
{
    Printed printed;
    FIX::MemoryStoreFactory store;
    const FIX::UtcTimeOnly midnight(0, 0, 0);
    FIX::Session session(printed, store, FIX::SessionID("FIX.4.2", "P", "V"), FIX::DataDictionaryProvider(),
                         FIX::TimeRange(midnight, midnight), 30, nullptr);
    const FIX::UtcTimeStamp now = FIX::UtcTimeStamp();
    for (int decimals : {0, 3}) {
        FIX42::NewOrderSingle m = order("engine-" + std::to_string(decimals), "350", '1', 0.1, FIX::TransactTime(now, decimals));
        session.send(m);
    }
    for (int decimals : {0, 3}) {
        FIX42::NewOrderSingle m = order("shares-" + std::to_string(decimals), "7203", '5', 100.1, FIX::TransactTime(now, decimals));
        m.setField(544, "2");
        m.setField(8214, "1");
        session.send(m);
    }
    return 0;
}
